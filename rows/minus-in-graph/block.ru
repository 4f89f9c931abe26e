PREFIX ex: <http://e/>
DELETE { GRAPH ?g { ?s ex:p ?v } } WHERE { GRAPH ?g { ?s ex:p ?v MINUS { ?s ex:q ?w } } FILTER(?v * 2 < 8) }
