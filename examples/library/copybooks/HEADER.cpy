*  What every record begins with.
NUMBER   FIELD P,4
KIND     FIELD C,1
