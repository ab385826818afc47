bes forms ltlf 'a -> b -> c | d & e U f'
