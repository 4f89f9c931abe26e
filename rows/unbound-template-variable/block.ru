PREFIX e: <http://e/>
INSERT { ?s e:q ?none . ?s a ?o } WHERE { ?s e:p ?o }
