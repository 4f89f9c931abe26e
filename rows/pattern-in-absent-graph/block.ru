PREFIX ex: <http://e/>
DELETE WHERE { ?s ?p ?o . GRAPH ex:none { } }
----
PREFIX ex: <http://e/>
DELETE WHERE { ?s ?p ?o . GRAPH ?g { } }
