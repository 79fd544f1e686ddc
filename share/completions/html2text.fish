# Completion of html2text for fish.
complete -c html2text -l width -x -d 'The columns of a line, 80 without it'
complete -c html2text -l rich -d 'No marks in the text'
complete -c html2text -l no-decorate -d 'No marks of emphasis, strong text and code'
complete -c html2text -l footnotes -d 'The targets of links after the page'
complete -c html2text -l shared-footnotes -d 'Each target once after the page'
complete -c html2text -l references -r -d 'Named references, as the JSON file of the HTML standard'
complete -c html2text -l max-bytes -x -d 'The most bytes that the page may have'
complete -c html2text -s h -l help -d 'Print the options'
