# Answers of Ruby's URI, a line for a line, or with the argument `addressable` those of Addressable.
require "uri"
require "addressable/uri" if ARGV == ["addressable"]

LIBRARY = ARGV == ["addressable"] ? Addressable::URI : URI

def text_of(field)
  field.b.gsub(/\\x(\h\h)/) { $1.hex.chr }.force_encoding("UTF-8")
end

def field_of(text)
  text.nil? ? "\\-" : text.to_s.b.gsub(/[^\x20-\x7e]|\\/n) { |byte| format("\\x%02x", byte.ord) }
end

# URI.parse gives a scheme's default port for an absent one, and URI.split tells them apart, but rejects less. A path without a slash after a scheme
# is opaque, together with its query. Addressable gives no port for the port 0.
def reading(text)
  uri = LIBRARY.parse(text)
  return [uri.scheme, uri.userinfo, uri.host, uri.port, uri.path, uri.query, uri.fragment] if LIBRARY != URI
  scheme, userinfo, host, port, _, path, opaque, query, fragment = URI.split(text)
  opaque ? nil : [scheme, userinfo, host, port, path, query, fragment]
end

def answer_to(chapter, first, second = nil, *)
  case chapter
  when "reading"
    parts = reading(first)
    parts ? "=" + parts.map { |part| field_of(part) }.join("\t") : "?"
  when "equality" then "=#{LIBRARY.parse(first) == LIBRARY.parse(second)}"
  when "normal" then "=" + field_of(LIBRARY.parse(first).normalize)
  when "resolution" then "=" + field_of(LIBRARY.join(first, second))
  when "relative" then "=" + field_of(LIBRARY.parse(first).route_to(second))
  else "?"
  end
end

# Addressable's route_to raises ArgumentError for a relative reference, URI's NoMethodError for an opaque URI against one that isn't.
REJECTED = LIBRARY == URI ? [URI::Error, NoMethodError] : [Addressable::URI::InvalidURIError, ArgumentError]

$stdin.each_line do |line|
  chapter, *fields = line.chomp.split("\t", -1)
  begin
    puts answer_to(chapter, *fields.map { |field| text_of(field) })
  rescue *REJECTED
    puts "!"
  end
end
