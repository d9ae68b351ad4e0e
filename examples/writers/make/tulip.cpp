// tulip PLAIN FOLDER: reads the graphs that `make.py plain PLAIN` wrote, and writes them by Tulip's GML Export.
#include <filesystem>
#include <fstream>
#include <sstream>
#include <string>
#include <vector>
#include <tulip/DoubleProperty.h>
#include <tulip/Graph.h>
#include <tulip/LayoutProperty.h>
#include <tulip/PluginLibraryLoader.h>
#include <tulip/StringProperty.h>
#include <tulip/TlpTools.h>

int main(int, char **words) {
    tlp::initTulipLib();
    tlp::PluginLibraryLoader::loadPlugins();
    for (const auto &file : std::filesystem::directory_iterator(words[1])) {
        tlp::Graph *graph = tlp::newGraph();
        auto *label = graph->getProperty<tlp::StringProperty>("viewLabel");
        auto *layout = graph->getProperty<tlp::LayoutProperty>("viewLayout");
        auto *weight = graph->getProperty<tlp::DoubleProperty>("weight");
        std::vector<tlp::node> nodes;
        std::ifstream in(file.path());
        for (std::string line; std::getline(in, line);) {
            std::vector<std::string> fields;
            std::stringstream cut(line);
            for (std::string field; std::getline(cut, field, '\t');) fields.push_back(field);
            if (fields[0] == "v") {
                nodes.push_back(graph->addNode());
                label->setNodeValue(nodes.back(), fields[1]);
                layout->setNodeValue(nodes.back(), tlp::Coord(std::stof(fields[2]), -std::stof(fields[3]), 0));
            } else {
                tlp::edge edge = graph->addEdge(nodes[std::stoul(fields[1])], nodes[std::stoul(fields[2])]);
                weight->setEdgeValue(edge, std::stod(fields[3]));
            }
        }
        std::ofstream out(std::filesystem::path(words[2]) / file.path().filename().replace_extension(".gml"));
        tlp::DataSet none;
        tlp::exportGraph(graph, out, "GML Export", none, nullptr);
        delete graph;
    }
}
