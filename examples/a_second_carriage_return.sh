printf 'a\r\na\r\r\n' | bes judge ltlf 'F a'
