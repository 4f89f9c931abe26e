PREFIX ex: <http://e/>
INSERT { _:x ex:of ?s } WHERE { ?s ex:p 1 OPTIONAL { ?s ex:q ?a } }
