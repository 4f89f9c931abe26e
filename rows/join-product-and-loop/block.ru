PREFIX ex: <http://e/>
INSERT { ?x ex:q ?z } WHERE { ?x ex:p ?y . ?y ex:p ?z }
----
PREFIX ex: <http://e/>
INSERT { ?x ex:r ?y } WHERE { ?x ex:p ex:b . ex:b ex:p ?y }
----
PREFIX ex: <http://e/>
INSERT { ?x ex:loop ?x } WHERE { ?x ex:p ?x }
