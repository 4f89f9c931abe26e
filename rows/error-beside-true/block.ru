PREFIX ex: <http://e/>
INSERT { ?s ex:ok 1 } WHERE { ?s ex:p ?v FILTER(?v < 2 || ?v = "x") }
