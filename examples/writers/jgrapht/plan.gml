Creator "JGraphT GML Exporter"
Version 1
graph
[
	label ""
	directed 1
	node
	[
		id 0
		label "go"
	]
	node
	[
		id 1
		label "plan"
	]
	node
	[
		id 2
		label "site"
	]
	node
	[
		id 3
		label "base"
	]
	node
	[
		id 4
		label "roof"
	]
	node
	[
		id 5
		label "panes"
	]
	node
	[
		id 6
		label "light"
	]
	node
	[
		id 7
		label "in"
	]
	edge
	[
		source 0
		target 1
		weight 2.0
	]
	edge
	[
		source 0
		target 2
		weight 1.0
	]
	edge
	[
		source 1
		target 5
		weight 6.0
	]
	edge
	[
		source 1
		target 3
		weight 1.0
	]
	edge
	[
		source 2
		target 3
		weight 3.0
	]
	edge
	[
		source 3
		target 4
		weight 4.0
	]
	edge
	[
		source 4
		target 5
		weight 1.0
	]
	edge
	[
		source 4
		target 6
		weight 2.0
	]
	edge
	[
		source 5
		target 7
		weight 2.0
	]
	edge
	[
		source 6
		target 7
		weight 2.0
	]
]
