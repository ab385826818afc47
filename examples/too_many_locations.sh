bes translate ltlf 'F a1 & F a2 & F a3 & F a4 & F a5 & F a6 & F a7 & F a8 & F a9 & F a10 & F a11'
