graph [ node [ id -5 ] node [ id 0 ] node [ id 7 ] edge [ source 7 target -5 ] edge [ source -5 target 0 ] ]
