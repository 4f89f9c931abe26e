PREFIX ex: <http://e/>
INSERT { ?s ex:q 1 } WHERE { ?s ex:p 1 }
----
PREFIX ex: <http://e/>
INSERT { ?s ex:q 1 } WHERE { ?s ex:p ?v FILTER(?v = 1) }
