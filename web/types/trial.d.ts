// What the tests of pages put into the window.

interface Window { trial: Record<string, unknown> }
