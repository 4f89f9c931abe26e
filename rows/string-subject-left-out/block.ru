PREFIX ex: <http://e/>
INSERT { ?o ex:q ?s } WHERE { ?s ex:p ?o }
