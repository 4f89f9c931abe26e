PREFIX ex: <http://e/>
INSERT { ?s ex:q ?v } WHERE { ?s ex:p ?v FILTER(STRSTARTS(?v, "a") && LANG(?v) = "en") }
----
PREFIX ex: <http://e/>
DELETE { ?s ex:p ?v } WHERE { ?s ex:p ?v FILTER(isIRI(?v) || STRLEN(?v) + 1 = 2) }
