Creator "JGraphT GML Exporter"
Version 1
graph
[
	label ""
	directed 1
	node
	[
		id 0
		label "ground"
	]
	node
	[
		id 1
		label "a"
	]
	node
	[
		id 2
		label "b"
	]
	node
	[
		id 3
		label "battery"
	]
	edge
	[
		source 0
		target 1
		weight 4.5
	]
	edge
	[
		source 0
		target 1
		weight Infinity
	]
	edge
	[
		source 0
		target 2
		weight 1.5
	]
	edge
	[
		source 1
		target 2
		weight 0.25
	]
	edge
	[
		source 1
		target 3
		weight 1.0E-7
	]
	edge
	[
		source 2
		target 3
		weight 3.0
	]
	edge
	[
		source 2
		target 3
		weight Infinity
	]
]
