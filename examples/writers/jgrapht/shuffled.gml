Creator "JGraphT GML Exporter"
Version 1
graph
[
	label ""
	directed 1
	node
	[
		id 0
		label "1"
	]
	node
	[
		id 1
		label "2"
	]
	node
	[
		id 2
		label "3"
	]
	node
	[
		id 3
		label "4"
	]
	node
	[
		id 4
		label "5"
	]
	node
	[
		id 5
		label "6"
	]
	node
	[
		id 6
		label "7"
	]
	node
	[
		id 7
		label "8"
	]
	node
	[
		id 8
		label "9"
	]
	node
	[
		id 9
		label "10"
	]
	node
	[
		id 10
		label "11"
	]
	node
	[
		id 11
		label "12"
	]
	edge
	[
		source 5
		target 9
		weight 1.0
	]
	edge
	[
		source 0
		target 3
		weight 1.0
	]
	edge
	[
		source 8
		target 10
		weight 1.0
	]
	edge
	[
		source 2
		target 5
		weight 1.0
	]
	edge
	[
		source 0
		target 1
		weight 1.0
	]
	edge
	[
		source 4
		target 7
		weight 1.0
	]
	edge
	[
		source 3
		target 6
		weight 1.0
	]
	edge
	[
		source 10
		target 11
		weight 1.0
	]
	edge
	[
		source 1
		target 4
		weight 1.0
	]
	edge
	[
		source 6
		target 9
		weight 1.0
	]
	edge
	[
		source 2
		target 4
		weight 1.0
	]
	edge
	[
		source 7
		target 10
		weight 1.0
	]
	edge
	[
		source 0
		target 2
		weight 1.0
	]
	edge
	[
		source 4
		target 8
		weight 1.0
	]
	edge
	[
		source 9
		target 11
		weight 1.0
	]
	edge
	[
		source 3
		target 5
		weight 1.0
	]
	edge
	[
		source 5
		target 8
		weight 1.0
	]
]
