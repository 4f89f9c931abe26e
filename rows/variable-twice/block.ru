PREFIX ex: <http://e/>
INSERT { ?x ex:loop ?x . ?x ex:q ?y } WHERE { ?x ex:p ?x }
