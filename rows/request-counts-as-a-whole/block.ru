PREFIX ex: <http://e/>
DELETE WHERE { ?s ex:p ?o } ;
INSERT { ex:a ex:p ex:b } WHERE { } ;
INSERT { ?s ex:q ?o } WHERE { { ?s ex:p ?o } UNION { ?o ex:p ?s } }
