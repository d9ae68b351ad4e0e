graph [ node [ id 1 ] node [ id 2 ] node [ id 3 ] node [ id 4 ] edge [ source 1 target 2 ] edge [ source 1 target 3 ] edge [ source 2 target 4 ] edge [ source 3 target 4 ] ]
edit [ insert [ edge 9 tail 1 tailafter 1 head 4 headafter 2 ] ]
