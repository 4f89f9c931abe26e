PREFIX ex: <http://e/>
INSERT DATA { ex:a ex:p ex:b . ex:a ex:q ex:b }
----
PREFIX ex: <http://e/>
INSERT { ?x ex:t 1 } WHERE { ?x ?y ex:b }
