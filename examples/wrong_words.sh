bes judge mtl 'F a'
