PREFIX ex: <http://e/>
INSERT DATA { ex:a ex:p ex:b }
----
PREFIX ex: <http://e/>
INSERT { ?x ex:q 1 } WHERE { ?x ex:p ?y }
