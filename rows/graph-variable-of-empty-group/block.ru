PREFIX ex: <http://e/>
INSERT { ?g ex:n 1 } WHERE { GRAPH ?g { } }
