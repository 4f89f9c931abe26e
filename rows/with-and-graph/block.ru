PREFIX ex: <http://e/>
WITH ex:g DELETE { ?s ex:p ?o } INSERT { ?o ex:p ?s . GRAPH ex:k { ?x ex:p ?y } } WHERE { ?s ex:p ?o GRAPH ex:h { ?x ex:p ?y } }
