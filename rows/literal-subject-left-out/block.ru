PREFIX ex: <http://e/>
INSERT { ?o ex:q 1 } WHERE { ?s ex:p ?o }
