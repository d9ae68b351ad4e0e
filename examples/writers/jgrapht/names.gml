Creator "JGraphT GML Exporter"
Version 1
graph
[
	label ""
	directed 1
	node
	[
		id 0
		label "a "quoted" name"
	]
	node
	[
		id 1
		label "Größe & Maß"
	]
	node
	[
		id 2
		label "list [of] 3"
	]
	node
	[
		id 3
		label "semi; colon # 5"
	]
	node
	[
		id 4
		label "yes / no (?)"
	]
	edge
	[
		source 0
		target 1
		weight 1.0
	]
	edge
	[
		source 0
		target 2
		weight 1.0
	]
	edge
	[
		source 1
		target 3
		weight 1.0
	]
	edge
	[
		source 2
		target 3
		weight 1.0
	]
	edge
	[
		source 3
		target 4
		weight 1.0
	]
]
