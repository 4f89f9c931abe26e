PREFIX ex: <http://e/>
INSERT { ?s ex:q 1 } WHERE { ?s ex:p ?v { FILTER(?v = 1) } }
----
PREFIX ex: <http://e/>
INSERT { ?s ex:r ?w } WHERE { ?s ex:p ?v OPTIONAL { ?x ex:p ?w FILTER(?v = ?w) } }
