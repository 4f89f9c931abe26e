PREFIX ex: <http://e/>
WITH ex:n DELETE { ?s ex:p ?o } WHERE { ?s ex:p ?o }
