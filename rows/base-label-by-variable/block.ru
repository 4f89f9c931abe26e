PREFIX ex: <http://e/>
INSERT { ?s ex:q _:x } WHERE { ?s ex:p ?o FILTER isBlank(?s) }
