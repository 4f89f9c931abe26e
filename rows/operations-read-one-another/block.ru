PREFIX ex: <http://e/>
INSERT DATA { ex:a ex:p ex:b , ex:c } ;
DELETE { $s ?p ?o } WHERE { ?s ?p $o } ;
DELETE DATA { ex:a ex:p ex:b }
