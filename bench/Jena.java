// java Jena.java FOLDER SECONDS: times Apache Jena SHACL on FOLDER/data.ttl and FOLDER/shapes.ttl. Prints nanoseconds of this
// thread's processor time for read (both texts), compile (the shapes), run (the validation) and whole, the best of the rounds of
// so many seconds, and writes the breaks, `RULE TERM` a line, to FOLDER/breaks.
import java.nio.file.Files;
import java.nio.file.Path;
import java.util.TreeSet;
import org.apache.jena.graph.Graph;
import org.apache.jena.graph.Node;
import org.apache.jena.riot.Lang;
import org.apache.jena.riot.RDFParser;
import org.apache.jena.riot.lang.LabelToNode;
import org.apache.jena.shacl.ShaclValidator;
import org.apache.jena.shacl.Shapes;
import org.apache.jena.shacl.ValidationReport;
import org.apache.jena.sparql.graph.GraphFactory;

class Jena {
  static Graph parse(String text) {
    Graph graph = GraphFactory.createDefaultGraph();
    RDFParser.fromString(text).lang(Lang.TURTLE).labelToNode(LabelToNode.createUseLabelAsGiven()).parse(graph);
    return graph;
  }

  static long now() {
    return System.nanoTime();
  }

  static String term(Node n) {
    if (n.isURI()) return "<" + n.getURI() + ">";
    if (n.isBlank()) return "_:" + n.getBlankNodeLabel();
    String text = "\"" + n.getLiteralLexicalForm() + "\"";
    if (!n.getLiteralLanguage().isEmpty()) return text + "@" + n.getLiteralLanguage();
    return text + "^^<" + n.getLiteralDatatypeURI() + ">";
  }

  public static void main(String[] words) throws Exception {
    Path folder = Path.of(words[0]);
    long limit = Long.parseLong(words[1]) * 1_000_000_000L;
    String data = Files.readString(folder.resolve("data.ttl"));
    String shapes = Files.readString(folder.resolve("shapes.ttl"));
    long[] best = {Long.MAX_VALUE, Long.MAX_VALUE, Long.MAX_VALUE, Long.MAX_VALUE};
    ValidationReport report;
    long start = now();
    do {
      long t0 = now();
      Graph facts = parse(data);
      Graph rules = parse(shapes);
      long t1 = now();
      Shapes compiled = Shapes.parse(rules);
      long t2 = now();
      report = ShaclValidator.get().validate(compiled, facts);
      long t3 = now();
      long[] times = {t1 - t0, t2 - t1, t3 - t2, t3 - t0};
      for (int k = 0; k < 4; k++) best[k] = Math.min(best[k], times[k]);
    } while (now() - start < limit);

    TreeSet<String> breaks = new TreeSet<>();
    report.getEntries().forEach(e -> breaks.add(e.source().getURI().substring("urn:r:".length()) + " " + term(e.focusNode())));
    Files.write(folder.resolve("breaks"), breaks);
    System.out.println(best[0] + " " + best[1] + " " + best[2] + " " + best[3]);
  }
}
