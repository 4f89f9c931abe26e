PREFIX ex: <http://e/>
INSERT DATA { ex:a ex:p ex:b }
----
PREFIX ex: <http://e/>
INSERT { ?x ex:q ex:c } WHERE { ?x ex:p ?y }
