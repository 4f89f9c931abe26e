PREFIX ex: <http://e/>
INSERT { ex:a ex:q ?g } WHERE { GRAPH ?g { ?s ex:p ?o FILTER(BOUND(?g)) } }
