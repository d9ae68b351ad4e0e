graph [ node [ id 1 ] node [ id 2 ] edge [ source 1 target 2 ] ]
ask [ from 1 to 2.0 ]
