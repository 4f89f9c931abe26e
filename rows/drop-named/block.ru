PREFIX ex: <http://e/>
DROP NAMED
