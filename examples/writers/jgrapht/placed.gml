Creator "JGraphT GML Exporter"
Version 1
graph
[
	label ""
	directed 1
	node
	[
		id 0
		label "bottom"
	]
	node
	[
		id 1
		label "left"
	]
	node
	[
		id 2
		label "middle"
	]
	node
	[
		id 3
		label "right"
	]
	node
	[
		id 4
		label "join"
	]
	node
	[
		id 5
		label "other"
	]
	node
	[
		id 6
		label "top"
	]
	edge
	[
		source 3
		target 5
		weight 1.0
	]
	edge
	[
		source 2
		target 4
		weight 1.0
	]
	edge
	[
		source 0
		target 2
		weight 1.0
	]
	edge
	[
		source 4
		target 6
		weight 1.0
	]
	edge
	[
		source 0
		target 3
		weight 1.0
	]
	edge
	[
		source 1
		target 4
		weight 1.0
	]
	edge
	[
		source 5
		target 6
		weight 1.0
	]
	edge
	[
		source 0
		target 1
		weight 1.0
	]
	edge
	[
		source 2
		target 5
		weight 1.0
	]
]
