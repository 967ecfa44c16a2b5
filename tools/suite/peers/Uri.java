// Answers of java.net.URI, a line for a line. It follows RFC 2396: opaque URIs and names of registries have no components of RFC 3986.
import java.io.BufferedReader;
import java.io.InputStreamReader;
import java.io.PrintStream;
import java.net.URI;
import java.net.URISyntaxException;
import java.nio.charset.StandardCharsets;

class Uri {
  static String textOf(String field) {
    var bytes = new java.io.ByteArrayOutputStream();
    for (int at = 0; at < field.length(); at++) {
      boolean isEscape = field.startsWith("\\x", at);
      bytes.write(isEscape ? Integer.parseInt(field.substring(at + 2, at + 4), 16) : field.charAt(at));
      at += isEscape ? 3 : 0;
    }
    return bytes.toString(StandardCharsets.UTF_8);
  }

  static String fieldOf(String text) {
    if (text == null) {
      return "\\-";
    }
    var out = new StringBuilder();
    for (byte one : text.getBytes(StandardCharsets.UTF_8)) {
      out.append(one >= 0x20 && one < 0x7f && one != 0x5c ? String.valueOf((char) one) : String.format("\\x%02x", one & 0xff));
    }
    return out.toString();
  }

  static String reading(URI uri) {
    if (uri.isOpaque() || (uri.getHost() == null && uri.getRawAuthority() != null)) {
      return "?";
    }
    String[] parts = {uri.getScheme(), uri.getRawUserInfo(), uri.getHost(), uri.getPort() < 0 ? null : String.valueOf(uri.getPort()),
      uri.getRawPath(), uri.getRawQuery(), uri.getRawFragment()};
    return "=" + String.join("\t", java.util.Arrays.stream(parts).map(Uri::fieldOf).toList());
  }

  static String answerTo(String[] fields) throws URISyntaxException {
    boolean isOne = fields[0].equals("reading");
    if (!isOne && !fields[0].matches("equality|resolution|relative")) {
      return "?";
    }
    URI first = new URI(textOf(fields[1]));
    URI second = isOne ? null : new URI(textOf(fields[2]));
    return switch (fields[0]) {
      case "reading" -> reading(first);
      case "equality" -> "=" + first.equals(second);
      case "resolution" -> "=" + fieldOf(first.resolve(second).toString());
      default -> "=" + fieldOf(first.relativize(second).toString());
    };
  }

  public static void main(String[] arguments) throws java.io.IOException {
    var in = new BufferedReader(new InputStreamReader(System.in, StandardCharsets.US_ASCII));
    var out = new PrintStream(new java.io.BufferedOutputStream(System.out), false, StandardCharsets.US_ASCII);
    for (String line = in.readLine(); line != null; line = in.readLine()) {
      String answer;
      try {
        answer = answerTo(line.split("\t", -1));
      } catch (URISyntaxException | IllegalArgumentException error) {
        answer = "!";
      }
      out.println(answer);
    }
    out.flush();
  }
}
