-- Answers of Haskell's network-uri, a line for a line.
module Main (main) where

import Data.Char (chr, isHexDigit, ord)
import Data.List (intercalate)
import Network.URI
import Numeric (readHex, showHex)

-- A byte is a character: no byte beyond ASCII is allowed.
textOf :: String -> String
textOf ('\\' : 'x' : one : other : rest) | all isHexDigit [one, other] = chr (fst (head (readHex [one, other]))) : textOf rest
textOf (one : rest) = one : textOf rest
textOf [] = []

fieldOf :: Maybe String -> String
fieldOf = maybe "\\-" (concatMap escaped)
  where
    escaped one
      | one >= ' ' && one < '\DEL' && one /= '\\' = [one]
      | otherwise = "\\x" ++ (if ord one < 16 then "0" else "") ++ showHex (ord one) ""

-- Without its last sign; an absent component is an empty string.
before :: String -> Maybe String
before "" = Nothing
before text = Just (init text)

after :: String -> Maybe String
after "" = Nothing
after text = Just (tail text)

reading :: URI -> String
reading uri = intercalate "\t" (map fieldOf parts)
  where
    place = uriAuthority uri
    parts =
      [ before (uriScheme uri), place >>= before . uriUserInfo, uriRegName <$> place, place >>= after . uriPort
      , Just (uriPath uri), after (uriQuery uri), after (uriFragment uri) ]

spelled :: URI -> String
spelled uri = fieldOf (Just (uriToString id uri ""))

normal :: String -> String
normal = normalizePathSegments . normalizeCase . normalizeEscape

answerTo :: [String] -> String
answerTo ("reading" : [text]) = maybe "!" (('=' :) . reading) (parseURIReference text)
answerTo ("normal" : [text]) = maybe "!" (const ('=' : fieldOf (Just (normal text)))) (parseURIReference text)
answerTo ("resolution" : [base, text]) = maybe "!" (('=' :) . spelled) (relativeTo <$> parseURIReference text <*> parseURI base)
answerTo ("relative" : [base, text]) = maybe "!" (('=' :) . spelled) (relativeFrom <$> parseURI text <*> parseURI base)
answerTo _ = "?"

fieldsOf :: String -> [String]
fieldsOf line = case break (== '\t') line of
  (field, _ : rest) -> textOf field : fieldsOf rest
  (field, []) -> [textOf field]

main :: IO ()
main = interact (unlines . map (answerTo . fieldsOf) . lines)
