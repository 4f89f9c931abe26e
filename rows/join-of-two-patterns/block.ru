PREFIX ex: <http://e/>
INSERT { ?x ex:q ?y } WHERE { ?x ex:p ?y . ?y ex:p ?x }
----
INSERT { } WHERE { }
