// Makes the links of a page absolute: rewrite BASE < PAGE. A link that is no URI stays.
#include "uriparse.hpp"

#include <iostream>
#include <iterator>
#include <regex>

int main(int, char **words) {
  const std::string page(std::istreambuf_iterator<char>(std::cin), {});
  const std::regex attribute("href=\"([^\"]*)\"");
  auto at = page.begin();
  for (std::sregex_iterator found(page.begin(), page.end(), attribute), end; found != end; ++found) {
    std::string link = (*found)[1];
    try {
      link = uriparse::resolve(words[1], uriparse::escape(link));
    } catch (const uriparse::error &) {
    }
    std::cout << std::string(at, (*found)[1].first) << link;
    at = (*found)[1].second;
  }
  std::cout << std::string(at, page.end());
}
