bes translate ldlf '<(true;true)*> end'
