<?php
// Answers of PHP's parse_url, a line for a line. It resolves no references.
function text_of(string $field): string {
    return preg_replace_callback('/\\\\x([0-9a-f]{2})/', fn ($found) => chr(hexdec($found[1])), $field);
}

function field_of(?string $text): string {
    if ($text === null) {
        return '\\-';
    }
    return preg_replace_callback('/[^\x20-\x7e]|\\\\/s', fn ($found) => sprintf('\\x%02x', ord($found[0])), $text);
}

function answer_to(array $fields): string {
    if ($fields[0] !== 'reading') {
        return '?';
    }
    $parts = parse_url(text_of($fields[1]));
    if ($parts === false) {
        return '!';
    }
    $user = $parts['user'] ?? null;
    if (isset($parts['pass'])) {
        $user = ($user ?? '') . ':' . $parts['pass'];
    }
    $port = isset($parts['port']) ? (string) $parts['port'] : null;
    $found = [$parts['scheme'] ?? null, $user, $parts['host'] ?? null, $port, $parts['path'] ?? '', $parts['query'] ?? null, $parts['fragment'] ?? null];
    return '=' . implode("\t", array_map('field_of', $found));
}

while (($line = fgets(STDIN)) !== false) {
    echo answer_to(explode("\t", rtrim($line, "\n"))), "\n";
}
