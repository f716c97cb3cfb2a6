// A window on Qt 6, which Qt takes into the session by itself, and out of it.
#include <QApplication>
#include <QWidget>

int main(int count, char **words)
{
    QApplication program(count, words);
    QWidget window;
    window.show();
    return program.exec();
}
