// Shows the reader's own time.
document.getElementById("now").textContent = new Date().toLocaleTimeString();
