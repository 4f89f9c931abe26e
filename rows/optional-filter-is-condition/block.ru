PREFIX ex: <http://e/>
INSERT { ?s ex:r ?v } WHERE { ?s ex:p ?o OPTIONAL { ?s ex:q ?v FILTER(?o = 1) } }
