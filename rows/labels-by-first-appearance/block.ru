PREFIX ex: <http://e/>
INSERT DATA { _:x ex:p _:y GRAPH ex:g { _:y ex:p _:x } } ;
INSERT { ?none ex:p _:a . _:b ex:q 1 } WHERE { }
