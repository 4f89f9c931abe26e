PREFIX ex: <http://e/>
INSERT { ?s ex:kept 1 } WHERE { ?s ex:p ?o MINUS { ?x ex:q ?y } }
