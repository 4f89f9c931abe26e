PREFIX ex: <http://e/>
INSERT DATA { GRAPH ex:g { ex:a ex:p 1 } }
----
PREFIX ex: <http://e/>
DELETE WHERE { GRAPH ex:g { ?s ?p ?o } }
