bes forms ldlf '!<(a? ; {b -> c})*> !d'
