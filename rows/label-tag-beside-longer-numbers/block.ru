PREFIX ex: <http://e/>
INSERT DATA { _:x ex:p 1 }
