import java.io.*;
import java.nio.charset.StandardCharsets;
import java.nio.file.*;
import java.util.*;
import org.jgrapht.graph.*;
import org.jgrapht.nio.*;
import org.jgrapht.nio.gml.GmlExporter;

/** Make PLAIN FOLDER: reads the graphs that `make.py plain PLAIN` wrote, and writes them by JGraphT's GmlExporter. */
public class Make {
    public static void main(String[] words) throws Exception {
        File[] files = new File(words[0]).listFiles((folder, name) -> name.endsWith(".txt"));
        Arrays.sort(files);
        for (File file : files) {
            DirectedWeightedPseudograph<Integer, DefaultWeightedEdge> graph = new DirectedWeightedPseudograph<>(DefaultWeightedEdge.class);
            Map<Integer, String> labels = new HashMap<>();
            for (String line : Files.readAllLines(file.toPath(), StandardCharsets.UTF_8)) {
                String[] fields = line.split("\t");
                if (fields[0].equals("v")) {
                    labels.put(labels.size(), fields[1]);
                    graph.addVertex(labels.size() - 1);
                } else {
                    DefaultWeightedEdge edge = graph.addEdge(Integer.parseInt(fields[1]), Integer.parseInt(fields[2]));
                    graph.setEdgeWeight(edge, fields[3].equals("inf") ? Double.POSITIVE_INFINITY : Double.parseDouble(fields[3]));
                }
            }
            GmlExporter<Integer, DefaultWeightedEdge> exporter = new GmlExporter<>(v -> String.valueOf(v));
            exporter.setParameter(GmlExporter.Parameter.EXPORT_VERTEX_LABELS, true);
            exporter.setParameter(GmlExporter.Parameter.EXPORT_EDGE_WEIGHTS, true);
            exporter.setVertexAttributeProvider(v -> Map.of("label", DefaultAttribute.createAttribute(labels.get(v))));
            String name = file.getName().replace(".txt", ".gml");
            try (Writer out = new OutputStreamWriter(new FileOutputStream(new File(words[1], name)), StandardCharsets.UTF_8)) {
                exporter.exportGraph(graph, out);
            }
        }
    }
}
