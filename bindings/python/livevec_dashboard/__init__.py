"""livevec-dashboard: live charts of a stream of numbers, in a browser.

    livevec-dashboard FILE|-        or  python3 -m livevec_dashboard FILE|-

Each name of the stream has a `livevec.Vector` of its samples. Each number on the page is an answer of that vector, and says after which edit.

| Module | What it does |
|---|---|
| `lines` | bytes into names and whole numbers; `numbers` and `times` read their texts |
| `stream` | standard input, or a file that is followed |
| `store` | the vectors, their renewal, and their answers |
| `views` | what a viewer looks at |
| `viewer` | what of it has changed |
| `columns` | the columns of a chart |
| `pace` | how much viewers may compute while the feed has more to read |
| `server` | the page, the events and what a request must be like |
| `connections` | how many connections there may be, and how long a request may take |
| `texts` | texts from outside, made fit to be shown |
| `page.html` | the page; `page.css` is its look, `page_state.js`, `page_charts.js`, `page_choices.js` are its script |
"""
