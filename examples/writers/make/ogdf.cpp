// ogdf PLAIN FOLDER: reads the graphs that `make.py plain PLAIN` wrote, and writes them by OGDF's GraphIO::writeGML.
// Build it with OGDF's headers, or with -DBUNDLED against the library that Tulip brings along, which has none.
#include <filesystem>
#include <fstream>
#include <sstream>
#include <string>
#include <vector>
#ifdef BUNDLED
namespace ogdf {
class Graph { char inside[1 << 16]; public: Graph(); ~Graph(); };
class GraphAttributes {
    char inside[1 << 16];
public:
    GraphAttributes(const Graph &, long);
    virtual ~GraphAttributes();
};
class GraphIO {
public:
    static bool readGML(GraphAttributes &, Graph &, std::istream &);
    static bool writeGML(const GraphAttributes &, std::ostream &);
};
}
#else
#include <ogdf/fileformats/GraphIO.h>
#endif

// The graph as GML, so that OGDF has the labels and places as its own.
static std::string gml(std::istream &in) {
    std::ostringstream text;
    text << "graph [ directed 1\n";
    int count = 0;
    for (std::string line; std::getline(in, line);) {
        std::vector<std::string> fields;
        std::stringstream cut(line);
        for (std::string field; std::getline(cut, field, '\t');) fields.push_back(field);
        if (fields[0] == "v") {
            std::string label;
            for (char c : fields[1]) label += c == '"' ? "\\\"" : std::string(1, c);
            text << "node [ id " << count++ << " label \"" << label << "\" ";
            text << "graphics [ x " << fields[2] << ".0 y " << fields[3] << ".0 ] ]\n";
        } else {
            const double weight = fields[3] == "inf" ? 1e6 : std::stod(fields[3]);
            text << "edge [ source " << fields[1] << " target " << fields[2] << " weight " << std::to_string(weight) << " ]\n";
        }
    }
    text << "]\n";
    return text.str();
}

int main(int, char **words) {
    // node graphics, edge graphics, weights of edges, labels of nodes
    const long kept = 0x1 | 0x2 | 0x8 | 0x20;
    for (const auto &file : std::filesystem::directory_iterator(words[1])) {
        std::ifstream in(file.path());
        std::istringstream text(gml(in));
        ogdf::Graph graph;
        ogdf::GraphAttributes attributes(graph, kept);
        if (!ogdf::GraphIO::readGML(attributes, graph, text)) return 1;
        std::ofstream out(std::filesystem::path(words[2]) / file.path().filename().replace_extension(".gml"));
        ogdf::GraphIO::writeGML(attributes, out);
    }
}
