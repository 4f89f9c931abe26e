PREFIX ex: <http://e/>
DELETE DATA { ex:a ex:p 1 }
----
PREFIX ex: <http://e/>
INSERT { ?s ex:q 1 } WHERE { { ?s ex:p ?o } UNION { ?s ex:p 1 } }
